class A
  def f(a)
    1
  end
end
