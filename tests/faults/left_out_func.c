/* 1: 608 left out: _Pragma, __func__ */ int main(void) { __func__; return 0; }
