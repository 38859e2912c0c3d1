class A
  def f
    true
    self
  end
end
