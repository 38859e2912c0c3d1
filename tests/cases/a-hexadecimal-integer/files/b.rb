class A
  def f
    0x1
  end
end
