class A
  def f
    x = y = 1
  end
end
