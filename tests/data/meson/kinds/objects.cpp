export module objects;
export int objects() { return 0; }
