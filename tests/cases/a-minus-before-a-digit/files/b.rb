class A
  def f
    x = -1
    -9223372036854775808
    -0
    x
  end
end
