class A
  def f
    x
  end
end
x = 1
