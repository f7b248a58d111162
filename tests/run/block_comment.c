int main(void) { return /* none */ 0; }
