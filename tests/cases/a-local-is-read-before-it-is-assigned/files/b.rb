class A
  def f
    x
    x = 1
  end
end
