class A
  def f(a, self)
    1
  end
end
