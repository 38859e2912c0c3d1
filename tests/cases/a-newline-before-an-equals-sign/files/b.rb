class A
  def f
    x
    = 1
  end
end
