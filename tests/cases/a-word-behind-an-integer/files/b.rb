class A
  def f
    1end
end
