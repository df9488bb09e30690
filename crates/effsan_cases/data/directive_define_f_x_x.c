#define F(x) x
