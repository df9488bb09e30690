#define DECLARE int x;

DECLARE
