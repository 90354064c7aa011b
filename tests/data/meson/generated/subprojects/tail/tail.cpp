export module tail;
export int tail() { return 1; }
