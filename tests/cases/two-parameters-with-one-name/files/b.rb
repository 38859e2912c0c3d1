class A
  def f(a, a)
    1
  end
end
