class A
  def f
    -9223372036854775809
  end
end
