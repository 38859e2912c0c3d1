class A
  def f(a, b) a end
end
A.new.f("x", 1, 2)
