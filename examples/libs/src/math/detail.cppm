export module sum:detail;

import number;

export Number twice(Number number) { return plus(number, number); }
