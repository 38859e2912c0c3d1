class A
  def f(a, b) a end
end
a = A.new
a.f(1.x, a.f)
a.g.f(:b.y, nil.z)
