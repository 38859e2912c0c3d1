class A
  def f(a, b)
    a = 1
  end
end
