import objects;
int main() { return objects(); }
