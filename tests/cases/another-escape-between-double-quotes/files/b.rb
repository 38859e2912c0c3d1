class A
  def f
    "\q"
  end
end
