#define P "0123456789abcdef"
#define Q P P P P P P P P P P P P P P P
#define R Q P
#define S Q "0123456789abcde"
#define T R R R R R R R R R R R R R R R
#define U T R
#define V T S
#define W U U U U U U U U U U U U U U U
#define X W U
#define Y W V
#define Z X X X X X X X X X X X X X X X Y
int main(void) { return sizeof Z != 1048576; }
