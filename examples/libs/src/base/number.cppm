export module number;

export struct Number {
  int value;
};

export Number plus(Number left, Number right);
