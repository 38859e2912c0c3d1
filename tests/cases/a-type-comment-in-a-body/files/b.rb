class A
  def f
    # @type var x: Integer
    nil
  end
end
