class A
  def f
    untyped = 1
    untyped
  end
end
