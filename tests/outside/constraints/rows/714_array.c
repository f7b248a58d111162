int
    main(void) { char a[1048417]; return 0; }
