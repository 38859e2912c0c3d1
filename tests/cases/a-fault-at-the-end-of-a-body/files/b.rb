class A
  def f
    2.x
  end
  def g(a)
    y = a.f(3)
    y
  end
end
