class A
  def f
    x = 1
  end
  def g
    x = :a
  end
end
