import native;
int main() { return native(); }
