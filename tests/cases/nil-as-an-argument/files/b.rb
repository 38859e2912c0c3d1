class A
  def f(n) n end
  def g(n) end
end
a = A.new
a.f(nil)
a.f(a.f(a.g(1)))
a.g(nil)
a.f(1)
