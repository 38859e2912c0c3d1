class A
  def f(a)
    a.run(a)
  end
  def run(a)
    a.run(a)
  end
end
