class A
  def f(a, b) a end
end
A.new.f("x", 1)
A.new.f(1, :b)
