export module shared;
import base;
export int shared() { return base() + 10; }
