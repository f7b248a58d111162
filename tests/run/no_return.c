int main(void) {  }
