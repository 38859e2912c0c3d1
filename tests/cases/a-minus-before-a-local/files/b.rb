class A
  def f
    x = 1
    -x
  end
end
