export module words;
export const char *hello() { return "hello"; }
