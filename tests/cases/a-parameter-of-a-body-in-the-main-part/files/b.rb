class A
  def f(a, b)
    a
  end
end
a
