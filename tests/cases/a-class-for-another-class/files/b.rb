class B
end
class A
  def f(a, b) a end
  def g(b)
    c = b
    c
  end
end
