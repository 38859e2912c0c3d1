class A
  def f(a)
    a
  end
end
