export module greet;
import words;
export const char *greeting() { return hello(); }
