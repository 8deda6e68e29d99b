<?xml version="1.0"?>
<!-- One page of the site as HTML; the parameter `page` names it. -->
<xsl:stylesheet version="1.0" xmlns:xsl="http://www.w3.org/1999/XSL/Transform">
  <xsl:import href="text.xsl"/>
  <xsl:include href="parts/contents.xsl"/>

  <xsl:output method="xml"/>
  <xsl:strip-space elements="site page section list"/>
  <xsl:param name="page" select="'index'"/>
  <xsl:key name="page" match="page" use="@name"/>

  <xsl:template match="/">
    <xsl:if test="not(key('page', $page))">
      <xsl:message terminate="yes">there is no page <xsl:value-of select="$page"/></xsl:message>
    </xsl:if>
    <xsl:apply-templates select="key('page', $page)"/>
  </xsl:template>

  <xsl:template match="page">
    <html>
      <head>
        <title><xsl:value-of select="concat(@title, ' - ', /site/@title)"/></title>
      </head>
      <body>
        <h1><xsl:value-of select="@title"/></h1>
        <xsl:apply-templates/>
        <xsl:call-template name="neighbours"/>
      </body>
    </html>
  </xsl:template>

  <!-- A note is a paragraph with a class; what is in it is as text.xsl has it. -->
  <xsl:template match="note">
    <p class="note"><xsl:apply-imports/></p>
  </xsl:template>
</xsl:stylesheet>
