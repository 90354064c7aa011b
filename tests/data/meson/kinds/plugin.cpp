import whole;
int plugin() { return whole(); }
