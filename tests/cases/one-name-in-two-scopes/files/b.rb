class A
  def f(x) x end
  def g
    x = "a"
    x
  end
end
x = nil
x
