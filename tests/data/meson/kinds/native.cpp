export module native;
export int native() { return 0; }
