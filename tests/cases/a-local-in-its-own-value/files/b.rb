class A
  def f
    x = x
  end
end
