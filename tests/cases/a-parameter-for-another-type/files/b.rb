class A
  def f(a, b)
    b
  end
end
