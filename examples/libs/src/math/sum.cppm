export module sum;

export import number;
export import :detail;

export int sum(int left, int right);
export int doubled(int number) { return twice({number}).value; }
