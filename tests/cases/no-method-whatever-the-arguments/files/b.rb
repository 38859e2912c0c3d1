class A
  def f(a, b) a end
end
a = A.new
a.g
a.g(1, 2, 3)
