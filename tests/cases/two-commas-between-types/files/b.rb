class A
  def f(a, b)
    1
  end
end
