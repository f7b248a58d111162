/* one */ int main(void) { // two
    return /* three */ 4; /* four
    */ }
