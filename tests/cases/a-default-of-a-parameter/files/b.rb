class A
  def f(a = 1)
    a
  end
end
