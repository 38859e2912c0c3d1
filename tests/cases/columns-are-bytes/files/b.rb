class Aé; def f() "é" end; end
