class A
  def f(a, b, c)
    a
  end
end
