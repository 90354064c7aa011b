module number;

Number plus(Number left, Number right) { return {left.value + right.value}; }
