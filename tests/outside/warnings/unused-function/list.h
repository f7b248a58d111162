/* A header has functions for all who include it. */
static int list_first(int list) { return list; }
static int list_second(int list) { return list + 1; }
