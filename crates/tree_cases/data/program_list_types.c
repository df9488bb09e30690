struct S { char name[8]; int n; int a[3]; };
union U { struct { int a; int b[2]; } s; int c[2]; };
struct V { int n; long v[]; };